method M() returns (r: int) { var x: int; print x; }
