method M() returns (a: int) { return 1, 2; }
