method M(x: int, y: int) { x, y; }
