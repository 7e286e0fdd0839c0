method P(a: int) returns (r: int) { r := a; }
method M() returns (x: int, y: int) { x, y := P(1); }
