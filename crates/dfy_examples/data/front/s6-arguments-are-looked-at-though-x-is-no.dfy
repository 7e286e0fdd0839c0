method M(x: int) { x(z); }
