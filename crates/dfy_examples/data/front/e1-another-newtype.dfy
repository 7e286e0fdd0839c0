newtype i8 = x: int | -128 <= x < 128
newtype j = x: int | 0 <= x < 9
method M(a: i8, b: j) returns (r: i8) { r := b; }
