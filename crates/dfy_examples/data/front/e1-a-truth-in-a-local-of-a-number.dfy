newtype i8 = x: int | -128 <= x < 128
method M() { var x: i8 := true; }
