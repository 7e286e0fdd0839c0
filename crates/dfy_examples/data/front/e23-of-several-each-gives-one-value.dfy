method P() returns (a: int, b: int) { a, b := 1, 2; }
method M() returns (a: int, b: int, c: int) { return P(), 1; }
