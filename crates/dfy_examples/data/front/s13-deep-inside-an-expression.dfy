method M() { var x: int; print -(1 + x) as int; }
