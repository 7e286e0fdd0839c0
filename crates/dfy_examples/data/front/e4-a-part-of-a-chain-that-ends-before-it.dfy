method M(a: int) { print a < true > 1; }
