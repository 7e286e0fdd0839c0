method M(a: int,) { }
