method M() returns (r: int) { print r; return; }
