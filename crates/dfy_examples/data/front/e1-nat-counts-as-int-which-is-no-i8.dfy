newtype i8 = x: int | -128 <= x < 128
method M(n: nat) { var m: i8 := n + 1; }
