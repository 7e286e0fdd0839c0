method M() { var b: bool, c: char := true, 1; }
