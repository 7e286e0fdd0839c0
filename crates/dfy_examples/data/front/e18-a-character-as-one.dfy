method M() { print 'a' as char; }
