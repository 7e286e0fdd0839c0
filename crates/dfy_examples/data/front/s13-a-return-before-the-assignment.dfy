method M(b: bool) returns (r: int) { if b { return; } r := 1; }
