method M() { print '\a'; }
