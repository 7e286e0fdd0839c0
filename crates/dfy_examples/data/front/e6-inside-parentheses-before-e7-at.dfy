method M(a: int) { print (a < 3 > 1) && 1; }
