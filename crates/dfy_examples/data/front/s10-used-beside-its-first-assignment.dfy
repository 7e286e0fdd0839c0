method M() { var x, y; x, y := y, 1; }
