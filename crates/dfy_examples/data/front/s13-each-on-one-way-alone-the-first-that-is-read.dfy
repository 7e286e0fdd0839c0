method M(b: bool) { var x: int, y: int; if b { x := 1; } else { y := 1; } print x + y; }
