method M(a: real) { }
