method M() { 1 + 2; }
