method M() { assert M; }
