method M(b: bool) { var x: int; if b { x := 1; } else if b { } else { x := 2; } print x; }
