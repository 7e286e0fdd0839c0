method M() { } requires true
