method P() { }
method Q(a: int) returns (r: int) { return a; }
method M(a: int, b: bool) { M(a - 1, b); P(); var x := Q(1); x := Q(x); return; }
