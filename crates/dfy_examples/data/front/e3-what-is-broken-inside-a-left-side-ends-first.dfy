method M() { (1 + true) := 1; }
