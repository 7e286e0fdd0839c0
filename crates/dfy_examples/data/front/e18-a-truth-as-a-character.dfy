method M() { print true as char; }
