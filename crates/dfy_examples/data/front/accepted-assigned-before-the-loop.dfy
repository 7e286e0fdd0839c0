method M(b: bool, i: int) returns (r: int) { r := 1; while i < 3 { r := 2; if b { return; } if b { break; } } }
