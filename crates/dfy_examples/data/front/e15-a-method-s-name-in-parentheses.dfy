method M() returns (x: int) { x := (M); }
