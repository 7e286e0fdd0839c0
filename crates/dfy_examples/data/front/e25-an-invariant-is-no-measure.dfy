method M(b: bool) { while b invariant b { } }
