method P(a: int) returns (r: int) { r := a; }
method M() { var P := 1; P := P + 1; { var M := P; M := 2; } }
