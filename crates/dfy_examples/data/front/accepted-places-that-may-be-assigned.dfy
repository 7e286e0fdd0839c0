method M(a: int) returns (r: int) { r := 1; var a := 1; a := 2; r, a := a, r; r, r := 1, 2; }
