method M() { if true { break; } }
