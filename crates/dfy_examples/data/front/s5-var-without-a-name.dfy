method M() { var := 1; }
