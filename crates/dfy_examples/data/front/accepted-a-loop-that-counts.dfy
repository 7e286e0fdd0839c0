method M() { var x: int; x := 0; while x < 3 invariant x <= 3 decreases 3 - x { x := x + 1; } print x; }
