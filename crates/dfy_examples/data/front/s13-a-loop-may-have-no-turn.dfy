method M(i: int) { var x: int; while i < 3 { x := 1; } print x; }
