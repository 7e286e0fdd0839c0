method M(M: int) { print M; }
