method M(a: bool, b: bool, c: bool) { print a <== b ==> c; }
