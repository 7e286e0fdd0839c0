method M(c: char) { print 1 + c as char as int; }
