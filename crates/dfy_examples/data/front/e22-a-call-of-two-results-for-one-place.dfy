method P() returns (a: int, b: int) { a, b := 1, 2; }
method M() { var x := P(); }
