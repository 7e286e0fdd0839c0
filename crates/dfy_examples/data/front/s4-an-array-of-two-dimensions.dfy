method M(a: array2) { }
