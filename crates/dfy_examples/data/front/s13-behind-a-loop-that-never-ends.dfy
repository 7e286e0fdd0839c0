method M() { var x: int; while true decreases 0 { } print x; }
