method M() { 5; }
