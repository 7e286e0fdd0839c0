method P(a: int) returns (r: int) { r := a; }
method M() { var b: bool := P(); }
