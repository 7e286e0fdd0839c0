method M(c: char) { print c < 'a' < 1; }
