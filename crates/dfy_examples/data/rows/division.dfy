newtype i32 = x: int | -0x8000_0000 <= x < 0x8000_0000
method Main() { var a: i32 := -7; print a / 2, " ", a % 2, " ", a / -2, " ", a % -2; }