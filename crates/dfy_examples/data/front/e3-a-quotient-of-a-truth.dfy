method M(b: bool) { print b / 2; }
