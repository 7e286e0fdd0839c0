method M(b: bool, i: int) { while b && b && i < 3 { } }
