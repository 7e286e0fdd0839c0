method M(x: int) { -x := 1; }
