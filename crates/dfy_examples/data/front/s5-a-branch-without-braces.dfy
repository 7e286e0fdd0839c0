method M(x: int) { if true x := 1; }
