method M() { (1); }
