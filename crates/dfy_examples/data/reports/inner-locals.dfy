newtype i8 = x: int | -128 <= x < 128
method M(a: i8) { var a: i8 := 1; assert a == 1; { var a: i8 := 2; assert a == 2; } assert a == 1; }