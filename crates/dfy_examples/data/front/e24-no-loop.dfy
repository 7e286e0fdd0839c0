method M() { break; }
