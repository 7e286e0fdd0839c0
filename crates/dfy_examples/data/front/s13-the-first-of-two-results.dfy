method M() returns (a: int, b: int) { return; }
