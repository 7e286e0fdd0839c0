method P() returns (b: bool) { b := true; }
method M(i: int) { while i < 3 invariant P() { } }
