method M() requires true invariant true ensures true { }
