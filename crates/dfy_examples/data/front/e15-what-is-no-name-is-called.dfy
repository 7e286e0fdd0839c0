method M(x: int) { print (x)(1); }
