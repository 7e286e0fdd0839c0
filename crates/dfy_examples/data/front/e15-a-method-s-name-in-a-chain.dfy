method M() { print M < 1 < true; }
