method M() { var x, y := 1; }
