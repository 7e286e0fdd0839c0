method P() returns (b: bool) { b := true; }
method M(a: bool) { a := P(); }
