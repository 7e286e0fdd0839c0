method M(i: int) { var x: int := i < i < i; }
