method M() { print M(1); }
