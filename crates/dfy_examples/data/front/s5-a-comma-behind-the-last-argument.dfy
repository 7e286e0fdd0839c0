method M() { M(1,); }
