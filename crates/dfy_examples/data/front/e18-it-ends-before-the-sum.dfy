method M() { print true as int + 1; }
