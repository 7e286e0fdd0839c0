method M() returns (a: int) { return true, 1, 2; }
