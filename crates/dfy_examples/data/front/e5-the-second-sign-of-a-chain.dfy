method M(i: int, b: bool) { print i == 1 == b; }
