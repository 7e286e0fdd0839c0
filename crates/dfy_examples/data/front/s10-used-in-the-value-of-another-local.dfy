method M() { var x; var y := x; x := 1; }
