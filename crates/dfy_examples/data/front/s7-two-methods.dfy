method M() { }
method M() { }
