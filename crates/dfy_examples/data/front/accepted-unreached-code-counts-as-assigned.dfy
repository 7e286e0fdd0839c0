method M() { var x: int; return; print x; }
