method M() { var x: int; x := x + 1; }
