method M(a: int) { a := 1; }
