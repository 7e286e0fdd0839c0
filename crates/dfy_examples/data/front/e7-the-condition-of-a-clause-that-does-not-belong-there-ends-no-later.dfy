method M(i: int) { while i < 3 ensures 1 { } }
