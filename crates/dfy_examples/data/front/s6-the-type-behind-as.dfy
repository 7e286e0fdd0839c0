method M(a: int) { print a as k; }
