method M(i: int) { print i ==> i ==> i; }
