method M() { var x: int; if x == 1 { } }
