method M() { print true as int; }
