method M() { var x: int; assert false ==> x == 1; }
