newtype i32 = x: int | -0x8000_0000 <= x < 0x8000_0000
method Main() { var x: i32 := 1; print x > 1 && x > 0, x < 1 || x <= 1, x == 1 ==> x != 1, x != 1 <== x == 2, x < 2 <==> x < 1, !(x >= 1); }