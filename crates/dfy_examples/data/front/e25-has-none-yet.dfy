method M(i: int) { while i != 0 { } }
