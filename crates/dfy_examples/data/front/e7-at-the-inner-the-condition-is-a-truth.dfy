method M(i: int) { assert (!i); }
