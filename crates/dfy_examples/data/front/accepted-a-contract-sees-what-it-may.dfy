method M(a: int) returns (b: int) requires a == 1 ensures b == a decreases a { b := a; }
