method M(i: int) returns (r: int) { while i < 3 { return; } }
