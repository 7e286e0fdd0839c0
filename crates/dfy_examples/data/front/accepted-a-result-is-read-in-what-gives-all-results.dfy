method M() returns (a: int, b: int) { a := 1; return a, 2; }
