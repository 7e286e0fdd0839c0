method P(a: int) returns (r: int) { r := a; }
method M() { var x: int; x := P(x); }
