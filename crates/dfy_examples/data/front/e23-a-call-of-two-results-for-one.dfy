method P() returns (a: int, b: int) { a, b := 1, 2; }
method M() returns (a: int) { return P(); }
