method M() { true; }
