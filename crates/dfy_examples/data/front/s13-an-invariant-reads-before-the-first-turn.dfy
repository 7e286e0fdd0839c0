method M(i: int) { var x: int; while i < 3 invariant x == 1 { x := 1; } }
