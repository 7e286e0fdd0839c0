method A() { print 1 + true; var x := P(); }
method P() { }
