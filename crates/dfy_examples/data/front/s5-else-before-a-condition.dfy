method M() { if true { } else true { } }
