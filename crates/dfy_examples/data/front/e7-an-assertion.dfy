method M() { assert 1; }
