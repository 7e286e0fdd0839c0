method M() returns (a: int, b: int) { return 1, 2, 3; }
