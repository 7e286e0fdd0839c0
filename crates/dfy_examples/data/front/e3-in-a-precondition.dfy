method M(r: int) requires 1 == 2 - true { }
