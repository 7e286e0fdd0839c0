method M() { var x := 1; { var x: int; print x; } }
