method M() { var x: int; x := 1, 2; }
