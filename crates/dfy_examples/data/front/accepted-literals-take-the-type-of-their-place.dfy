newtype i8 = x: int | -128 <= x < 128
method P(a: i8, b: i8) { }
method M() returns (r: i8) { var x: i8 := 1 + 2 * -3; x := (1); x := -(1) - (2 + 3); P(1 + 2, -(4)); r := x + 1; return 1 + 2; }
