method M(a) { }
