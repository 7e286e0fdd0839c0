method M(i: int) { print ! !i; }
