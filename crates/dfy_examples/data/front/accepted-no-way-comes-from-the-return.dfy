method M(b: bool) returns (r: int) { if b { r := 1; } else { return 2; } }
