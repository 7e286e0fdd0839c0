newtype i8 = x: int | -128 <= x < 128
method M(a: i8) { var x := 1 + 2; x := a; }
