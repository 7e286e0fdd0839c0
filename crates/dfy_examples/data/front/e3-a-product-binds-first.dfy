method M(a: bool, b: int) { print a + b * b; }
