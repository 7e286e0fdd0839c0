method P() { }
method M() { var x; x := P(); }
