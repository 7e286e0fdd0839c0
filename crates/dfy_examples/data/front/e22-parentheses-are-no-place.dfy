method M() returns (x: int) { (x) := 1; }
