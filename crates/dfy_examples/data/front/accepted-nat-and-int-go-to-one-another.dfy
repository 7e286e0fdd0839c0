method P(a: int) returns (r: int) { r := a; }
method M(n: nat, i: int) returns (r: nat) { P(n); var m: nat := P(i); r := i; return n; }
