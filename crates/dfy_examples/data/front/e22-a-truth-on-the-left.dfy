method M() { true := 1; }
