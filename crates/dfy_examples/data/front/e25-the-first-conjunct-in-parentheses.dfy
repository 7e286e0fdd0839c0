method M(b: bool, i: int) { while (b && i < 3) { } }
