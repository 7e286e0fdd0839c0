method M() requires x == 1 { }
