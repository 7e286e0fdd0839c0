method M() { var x: int; print 1, 'a', x; }
