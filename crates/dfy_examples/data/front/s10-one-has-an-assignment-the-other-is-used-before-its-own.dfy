method M() { var x; var y; y := x; x := 1; }
