method M() { var x; x := x; }
