method P() returns (b: bool) { b := true; }
method M() { if P() { } }
