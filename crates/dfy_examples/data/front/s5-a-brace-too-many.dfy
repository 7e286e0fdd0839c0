method M() { } }
