method M(a: int) returns (x: int) { x, a := 1, 2; }
