method M() { var x := 1; { x := 2; var x := true; x := 3; } }
