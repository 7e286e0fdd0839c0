method M(a: bv8) { }
