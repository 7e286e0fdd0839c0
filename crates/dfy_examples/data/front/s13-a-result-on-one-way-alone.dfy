method M(b: bool) returns (r: int) { if b { r := 1; } }
