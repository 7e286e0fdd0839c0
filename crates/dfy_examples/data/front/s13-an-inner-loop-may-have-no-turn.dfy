method M(i: int) { var x: int; while i < 3 { while i < 2 { x := 1; break; } print x; } }
