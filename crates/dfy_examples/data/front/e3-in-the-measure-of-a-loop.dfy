method M(i: int) { while i < 3 decreases i, 'a' - 1 { } }
