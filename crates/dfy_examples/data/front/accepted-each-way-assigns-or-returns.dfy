method M(b: bool) returns (r: int) { if b { r := 1; } else if b { return 2; } else { r := 3; } }
