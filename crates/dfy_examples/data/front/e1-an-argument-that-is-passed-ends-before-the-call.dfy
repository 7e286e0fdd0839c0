method P(a: int) returns (r: int) { r := a; }
method M() { P(true, 2); }
