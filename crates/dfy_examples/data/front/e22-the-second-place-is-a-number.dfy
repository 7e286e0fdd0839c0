method M() returns (x: int) { x, 5 := 1, 2; }
