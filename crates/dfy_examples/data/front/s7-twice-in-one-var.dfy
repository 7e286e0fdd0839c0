method M() { var x, x := 1, 2; }
