method M() returns (r: int) { while true decreases 0 { r := 1; break; } }
