method M() { var x: int, y; y := true + 1; }
