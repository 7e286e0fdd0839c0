method M() returns (a: int) { a := 1; return; }
