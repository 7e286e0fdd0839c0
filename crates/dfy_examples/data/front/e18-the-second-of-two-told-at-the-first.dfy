method M() { print 1 as char as char; }
