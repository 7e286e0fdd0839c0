method P() { }
method M() { P(1); }
