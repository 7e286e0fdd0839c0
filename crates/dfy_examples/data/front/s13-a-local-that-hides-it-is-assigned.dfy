method M() { var x: int; { var x := 1; } print x; }
