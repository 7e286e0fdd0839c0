method M() { var x := x; }
