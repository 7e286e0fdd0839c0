method M() { var x; while 1 < 2 invariant x == 1 { x := 1; } }
