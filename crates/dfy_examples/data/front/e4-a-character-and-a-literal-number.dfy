method M() { print 'a' < 1; }
