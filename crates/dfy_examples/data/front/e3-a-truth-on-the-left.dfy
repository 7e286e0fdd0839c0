method M() { print true + 1; }
