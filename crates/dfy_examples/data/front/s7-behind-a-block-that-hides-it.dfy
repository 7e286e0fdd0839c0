method M() { var x := 1; { var x := 2; } var x := 3; }
