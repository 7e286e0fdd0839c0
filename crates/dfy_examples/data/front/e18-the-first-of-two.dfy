method M(c: char) { print c as char as int; }
