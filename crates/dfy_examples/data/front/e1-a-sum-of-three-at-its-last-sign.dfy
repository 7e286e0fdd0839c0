method M(i: int) { var b: bool := i + i - i; }
