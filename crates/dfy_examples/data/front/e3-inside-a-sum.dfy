method M(a: int, b: int) { print a * b * true + 1; }
