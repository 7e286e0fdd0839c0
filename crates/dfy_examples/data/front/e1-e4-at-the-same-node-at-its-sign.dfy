method M(a: int) { var x: int := a < true; }
