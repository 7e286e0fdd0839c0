method P() returns (a: int, b: int) { a, b := 1, 2; }
method M() { var x: int, y: int; x, y := P(); print x, y; { x := 1; } print x; }
