method M() { var x; print 1 as int < x; }
