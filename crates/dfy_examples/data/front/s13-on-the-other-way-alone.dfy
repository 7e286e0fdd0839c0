method M(b: bool) { var x: int; if b { } else { x := 1; } print x; }
