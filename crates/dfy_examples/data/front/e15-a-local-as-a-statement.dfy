method M(x: int) { x; }
