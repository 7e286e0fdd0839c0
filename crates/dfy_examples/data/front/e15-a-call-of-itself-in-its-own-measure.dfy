method M(a: int) decreases M(a) { }
