method M() { var x: int; var y := x; }
