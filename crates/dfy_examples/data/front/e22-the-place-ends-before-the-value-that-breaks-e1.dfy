method M(a: int) { a := true; }
