newtype i8 = x: int | -128 <= x < 128
method M() { var x: i8 := 300; var n: nat := -1; var m: nat := 0 - 1; }
