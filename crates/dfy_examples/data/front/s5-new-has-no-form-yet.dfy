method M() { new; }
