method M(a: int) returns (x: int) { a, x := 1, 2; }
