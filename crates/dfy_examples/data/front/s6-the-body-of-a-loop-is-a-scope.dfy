method M() { while true decreases 0 { var x := 1; } print x; }
