method M() { M(1 2); }
