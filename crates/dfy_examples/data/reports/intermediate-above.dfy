newtype i8 = x: int | -128 <= x < 128
method M(a: i8) returns (r: i8) { r := a + 1 - 1; }