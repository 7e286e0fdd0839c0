method M() { var x; assert x == 1; x := 1; }
