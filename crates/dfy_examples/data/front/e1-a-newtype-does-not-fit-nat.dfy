newtype i8 = x: int | -128 <= x < 128
method M(a: i8) { var n: nat := a; }
