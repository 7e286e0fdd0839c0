method M(a: int) { print a[0]; }
