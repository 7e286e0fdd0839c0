method M() { { break; } }
