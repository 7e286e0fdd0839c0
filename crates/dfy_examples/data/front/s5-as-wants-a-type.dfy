method M(x: int) { print x as 1; }
