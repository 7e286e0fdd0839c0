method M(a: int) { assert a != 1 < 2; }
