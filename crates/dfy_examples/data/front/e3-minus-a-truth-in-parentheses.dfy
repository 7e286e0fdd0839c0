method M() { print -(true); }
