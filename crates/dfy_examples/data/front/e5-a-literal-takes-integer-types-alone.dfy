method M(c: char) { print c == 97; }
