method M() { var x, y: int; y := 1; x := y; print x; }
