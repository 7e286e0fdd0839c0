newtype i32 = x: int | -0x8000_0000 <= x < 0x8000_0000
method Main() { var i: i32 := 0; while i < 3 invariant 0 <= i <= 3 { print i; i := i + 1; } }