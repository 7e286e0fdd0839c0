method M() { var x; while 1 < 2 decreases x { x := 1; } }
