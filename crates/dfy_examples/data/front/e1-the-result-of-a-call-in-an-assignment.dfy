method P() returns (b: bool) { b := true; }
method M() returns (x: int) { x := P(); }
