method M() { var x; { var x := 1; x := 2; } }
