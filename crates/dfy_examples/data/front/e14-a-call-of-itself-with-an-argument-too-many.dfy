method M() { M(true); }
