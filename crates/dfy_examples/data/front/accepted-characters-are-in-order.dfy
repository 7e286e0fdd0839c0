method M(c: char) { print 'a' <= c; }
