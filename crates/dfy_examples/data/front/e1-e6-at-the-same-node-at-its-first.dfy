method M(a: int) { var x: int := a < 3 > 1; }
