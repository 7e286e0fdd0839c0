method M() { } /* /* */ a
