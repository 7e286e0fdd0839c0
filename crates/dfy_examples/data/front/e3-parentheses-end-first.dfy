method M() { print 1 + (true + 2) + 'a'; }
