method M() returns (a: int) { while 1 < 2 { return 1, 2; } }
