method M(i: int) { var x; while i < 3 { x := 1; } x := true; }
