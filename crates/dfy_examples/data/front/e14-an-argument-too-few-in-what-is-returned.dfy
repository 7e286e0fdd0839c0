method P(a: int) returns (r: int) { r := a; }
method M() returns (r: int) { return P(); }
