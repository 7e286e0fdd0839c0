method M() { var x := 1, y; }
