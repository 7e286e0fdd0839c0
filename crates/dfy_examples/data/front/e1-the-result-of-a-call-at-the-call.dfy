method P() returns (b: bool) { b := true; }
method M() { var x: int := P(); }
