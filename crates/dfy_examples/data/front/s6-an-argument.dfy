method M() { M(x); }
