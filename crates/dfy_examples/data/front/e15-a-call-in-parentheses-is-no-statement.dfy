method M() { (M()); }
