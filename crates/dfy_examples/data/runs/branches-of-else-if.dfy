newtype i32 = x: int | -0x8000_0000 <= x < 0x8000_0000
method Main() { var x: i32 := 3; if x == 1 { print "one"; } else if x == 2 { print "two"; } else { print "more"; } }