method P(a: int) returns (r: int) { r := a; }
method M() { var x: int, y: bool := P(1), P(2); }
