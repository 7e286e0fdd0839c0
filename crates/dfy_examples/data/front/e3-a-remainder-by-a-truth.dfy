method M(b: bool) { print 1 % b; }
