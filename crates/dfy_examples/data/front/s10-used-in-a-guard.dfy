method M() { var x; if x { } }
