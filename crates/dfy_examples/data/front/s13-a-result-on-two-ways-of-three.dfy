method M(b: bool) returns (r: int) { if b { r := 1; } else if b { } else { r := 2; } }
