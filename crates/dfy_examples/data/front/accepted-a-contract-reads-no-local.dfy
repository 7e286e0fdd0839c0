method M(a: int) returns (r: int) ensures r == a decreases a { return a; }
