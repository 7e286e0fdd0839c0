newtype i8 = x: int | -128 <= x < 128
newtype j = x: int | 1 <= x < 9 witness 1
method M(c: j) { assert 1 <= c <= 8; }