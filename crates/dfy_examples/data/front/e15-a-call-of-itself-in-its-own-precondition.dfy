method M(a: int) requires M(a) { }
