newtype i32 = x: int | -0x8000_0000 <= x < 0x8000_0000
method Main() { print 1 as i32; print 2 as i32; }