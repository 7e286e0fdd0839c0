method M() { print 1 < < 2; }
