method M(i: int, b: bool) { print i < 3 != b; }
