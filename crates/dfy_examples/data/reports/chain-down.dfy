newtype i8 = x: int | -128 <= x < 128
method M(a: i8, c: i8) requires a >= c > 3 { assert a > 3; }