method M() { { var x := 1; } x := 2; }
