method M(i: int) { assert i + 1; }
