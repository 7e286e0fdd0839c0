method M() returns (r: int) { return 'a'; }
