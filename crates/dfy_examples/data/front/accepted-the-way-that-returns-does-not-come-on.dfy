method M(b: bool) { var x: int; if b { return; } else { x := 1; } print x; }
