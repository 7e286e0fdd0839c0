newtype i8 = x: int | -128 <= x < 128
method M(a: i8) { assert a; }
newtype j = x: int | 1 <= x < 9