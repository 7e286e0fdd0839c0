method M() { var x; print x; x := 1; }
