method M() returns (r: int) { var x; return x; }
