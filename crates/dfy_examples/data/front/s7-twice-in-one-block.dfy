method M() { var x := 1; var x := 2; }
