method M() { 5 := 1; }
