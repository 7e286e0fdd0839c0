method P() { }
method M() { return P(); }
