method M() { if 'a' { } }
