method M(b: bool) { while true decreases 0 { var x: int; if b { x := 1; } else { break; } print x; } }
