method P() { }
method M() { print P(); }
