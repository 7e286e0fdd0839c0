newtype i8 = x: int | -128 <= x < 128
newtype b = x: int | 0 <= x < 2
method M(a: b) { if a < 1 { } assert a < 1; }