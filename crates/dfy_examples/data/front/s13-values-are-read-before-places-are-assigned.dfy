method M() { var x: int, y: int; x, y := 1, x; }
