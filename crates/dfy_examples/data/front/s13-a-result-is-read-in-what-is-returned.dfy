method M() returns (a: int, b: int) { return a, 1; }
