method M(i: int) { while i < 3 { var x; print x; } }
