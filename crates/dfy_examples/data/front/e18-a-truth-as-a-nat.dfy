method M() { print true as nat; }
