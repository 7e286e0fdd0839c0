method M(b: bool) returns (r: int) { while true decreases 0 { if b { return 1; } } }
