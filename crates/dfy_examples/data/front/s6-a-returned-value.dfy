method M() returns (r: int) { return x; }
