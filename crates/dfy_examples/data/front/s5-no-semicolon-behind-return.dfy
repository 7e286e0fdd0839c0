method M() { return 1 }
