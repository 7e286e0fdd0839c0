method P() returns (a: int, b: int) { a, b := 1, 2; }
method M() { var x, y := P(); x, y := y, x; x, y := P(); }
