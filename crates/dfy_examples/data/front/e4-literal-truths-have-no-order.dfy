method M() { print true >= false; }
