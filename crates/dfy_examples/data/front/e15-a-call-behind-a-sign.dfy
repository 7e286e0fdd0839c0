method P(a: int) returns (r: int) { r := a; }
method M() { print -P(1); }
