method P() { }
method M() { assert P(); }
