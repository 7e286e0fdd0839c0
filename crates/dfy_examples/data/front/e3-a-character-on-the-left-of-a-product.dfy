method M() { print 'a' * 2; }
