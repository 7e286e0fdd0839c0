newtype i8 = x: int | -128 <= x < 128
method M() returns (r: i8) { print r; assert 1; }