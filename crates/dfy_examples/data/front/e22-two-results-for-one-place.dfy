method P() returns (a: int, b: int) { a, b := 1, 2; }
method M() returns (x: int) { x := P(); }
