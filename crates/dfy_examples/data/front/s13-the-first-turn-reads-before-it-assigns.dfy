method M(b: bool, i: int) { var x: int; while i < 3 { print x; if b { break; } x := 1; } }
