method P(a: int) returns (r: int) { r := a; }
method M(i: int) { while i < 3 decreases P(1) { } }
