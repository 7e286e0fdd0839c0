method M(i: int) { while i < 3 { var x: int; print x; x := 1; } }
