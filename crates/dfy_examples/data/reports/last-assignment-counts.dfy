newtype i8 = x: int | -128 <= x < 128
method M() returns (r: i8) ensures r == 2 { r := 1; r := 2; }