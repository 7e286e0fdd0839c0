method M() { var c: char := 1; }
