method P(a: int) returns (r: int) { r := a; }
method M(i: int) { while i < 3 invariant P(1) { } }
