method M() { var x; x, x := 1, true; }
