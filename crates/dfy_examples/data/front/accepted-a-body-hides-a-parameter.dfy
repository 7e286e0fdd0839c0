method M(a: int) { var a := 1; }
