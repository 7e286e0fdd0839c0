method M(c: char) { while 'a' < c { } }
