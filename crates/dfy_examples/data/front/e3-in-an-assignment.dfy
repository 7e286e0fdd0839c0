method M() returns (x: int, y: int) { x, y := 1, 2 * true; }
