method M() { print 1 - 'a'; }
