method M(b: bool) { print 1 < 2 < b; }
