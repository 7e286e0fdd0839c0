method M() { var x: int; assert x == 1; }
