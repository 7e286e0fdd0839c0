newtype i32 = x: int | -0x8000_0000 <= x < 0x8000_0000
method Main() { var i32: i32 := 1_0; print i32 + i32; }