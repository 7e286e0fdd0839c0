method P() { }
method M() { var x := P(); }
