method M() { var x; while x < 2 { x := 1; } }
