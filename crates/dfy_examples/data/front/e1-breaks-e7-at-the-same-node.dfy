method M() { var x: int; x := !3; }
