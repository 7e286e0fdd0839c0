method P(a: int) returns (r: int) { r := a; }
method M() { var x; x := P(1); x := 'a'; }
