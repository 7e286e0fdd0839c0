method M() returns (a: char, b: bool) { return 'a', 2; }
