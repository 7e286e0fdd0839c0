method M() { var x, y := 1, 2; x, y := 1; }
