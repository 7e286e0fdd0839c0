method M() { 'a' := 1; }
