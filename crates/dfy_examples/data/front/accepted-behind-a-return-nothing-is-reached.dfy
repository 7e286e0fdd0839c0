method M() returns (r: int) { return 1; print r; }
