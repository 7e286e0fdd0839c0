method P() { }
method M() returns (x: int) { x := P(); }
