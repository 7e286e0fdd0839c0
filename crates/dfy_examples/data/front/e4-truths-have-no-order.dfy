method M(b: bool) { print b < b; }
