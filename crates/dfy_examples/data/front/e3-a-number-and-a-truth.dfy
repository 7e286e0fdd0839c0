method M(a: int, b: bool) { print a + b; }
