newtype i8 = x: int | -128 <= x < 128
newtype o = x: int | 0 <= x < 1
method M(a: o) { assert a < 2; }