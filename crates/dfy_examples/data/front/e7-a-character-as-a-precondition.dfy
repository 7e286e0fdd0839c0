method M() requires 'a' { }
