newtype i8 = x: int | -128 <= x < 128
method M(a: i8, c: i8, d: i8, e: i8) requires a < c == d <= e { assert a < d && c <= e && a < e; }