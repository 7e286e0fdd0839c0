newtype i8 = x: int | -128 <= x < 128
newtype b = x: int | 0 <= x < 2
method M(a: b) returns (r: b) { r := 0; if a == 1 { r := 1; } assert r == 0; }