method M(b: bool, i: int) { print b <== b <== i; }
