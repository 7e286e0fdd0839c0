method M() { var x: int; while x < 3 { x := 1; } }
