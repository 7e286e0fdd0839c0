method P(a: int) returns (r: int) { r := a; }
method M() { P(1); var x, y := P(2), P(3); }
