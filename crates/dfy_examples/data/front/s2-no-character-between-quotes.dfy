method M() { print ''; }
