method M(b: bool) returns (r: int) { if b { return 1; } r := 2; }
