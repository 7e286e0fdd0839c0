newtype i8 = x: int | -128 <= x < 128
method M(i: int) { var x: i8 := -(i); }
