method M(a: int) { print a <= 1 >= 2; }
