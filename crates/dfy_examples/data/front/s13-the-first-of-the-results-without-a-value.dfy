method M() returns (a: int, b: int) { b := 1; }
