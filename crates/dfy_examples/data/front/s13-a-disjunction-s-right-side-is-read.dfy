method M() { var x: bool; assert true || x; }
