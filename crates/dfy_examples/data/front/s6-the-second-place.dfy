method M() returns (x: int) { x, y := 1, 2; }
