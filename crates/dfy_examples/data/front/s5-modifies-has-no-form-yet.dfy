method M() modifies 1 { }
