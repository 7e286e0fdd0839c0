method M() { var x: int; print x; }
