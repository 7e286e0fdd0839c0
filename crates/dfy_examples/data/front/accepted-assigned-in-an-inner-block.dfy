method M() { var x; { x := 1; } print x + 1; }
