method M() { x := 1; }
