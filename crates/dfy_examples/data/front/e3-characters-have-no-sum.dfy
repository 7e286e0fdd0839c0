method M(c: char) { print c + c; }
