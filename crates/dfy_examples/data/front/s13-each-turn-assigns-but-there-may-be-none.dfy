method M(b: bool, i: int) { var x: int; while i < 3 { if b { x := 1; break; } else { x := 2; break; } } print x; }
