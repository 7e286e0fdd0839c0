newtype i8 = x: int | -128 <= x < 128
method M(a: i8) returns (r: i8) { if a < 127 { r := a + 1; } else { r := a; } }