method M() returns (b: bool) { return 1; }
