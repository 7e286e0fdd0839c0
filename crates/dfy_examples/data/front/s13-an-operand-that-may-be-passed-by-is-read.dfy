method M(b: bool) { var x: int; print b && x == 1; }
