newtype i8 = x: int | -128 <= x < 128
method M(a: int) { var x: i8 := a; }
