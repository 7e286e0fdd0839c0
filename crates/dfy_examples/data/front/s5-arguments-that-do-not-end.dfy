method M() { M(; }
