method M() returns (r: T) { }
