method M() { var x: int; while true decreases 0 { x := 1; break; } print x; }
