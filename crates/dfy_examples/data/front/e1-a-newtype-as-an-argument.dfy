newtype i8 = x: int | -128 <= x < 128
method P(a: int) returns (r: int) { r := a; }
method M(a: i8) { P(a); }
