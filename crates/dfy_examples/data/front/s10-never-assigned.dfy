method M() { var x; }
