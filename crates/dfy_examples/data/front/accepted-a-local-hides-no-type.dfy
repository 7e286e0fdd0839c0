newtype i8 = x: int | -128 <= x < 128
method M() { var i8 := 1; print 1 as i8; var y: i8 := 2; print i8; }
