method M() { if true { return 1; } }
