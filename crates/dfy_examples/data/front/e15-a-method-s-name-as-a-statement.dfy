method M() { M; }
