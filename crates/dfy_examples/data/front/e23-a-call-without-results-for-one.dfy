method P() { }
method M() returns (a: int) { return P(); }
