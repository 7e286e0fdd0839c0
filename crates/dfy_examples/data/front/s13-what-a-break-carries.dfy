method M(b: bool) { var x: int; while true decreases 0 { if b { break; } x := 1; } print x; }
