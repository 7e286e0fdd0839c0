method M(b: bool, i: int) { while i < 3 { var x: int; if b { x := 1; } print x; } }
