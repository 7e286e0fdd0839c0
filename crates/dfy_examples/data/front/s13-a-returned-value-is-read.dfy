method M() returns (r: int) { var x: int; return x; }
