method M() { var x, y; x := 1; }
