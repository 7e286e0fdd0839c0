method M(b: bool) { var x: int; if b { x := 1; } else if x == 1 { } }
