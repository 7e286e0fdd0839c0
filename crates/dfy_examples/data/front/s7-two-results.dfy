method M() returns (a: int, a: int) { }
