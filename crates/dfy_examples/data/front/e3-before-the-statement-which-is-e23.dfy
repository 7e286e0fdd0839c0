method M() { return 1 + true; }
