method M() { print (); }
