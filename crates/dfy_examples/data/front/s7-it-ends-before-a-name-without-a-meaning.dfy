method M() { var x, y, x := 1, 2, z; }
