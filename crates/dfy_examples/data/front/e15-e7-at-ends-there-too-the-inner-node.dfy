method M(b: bool) { assert b && M; }
