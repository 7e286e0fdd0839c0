method M(a: int, b: int, b: int, a: int) { }
