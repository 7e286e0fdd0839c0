method M() { else { } }
