method M(c: char, i: int) { print c <= i; }
