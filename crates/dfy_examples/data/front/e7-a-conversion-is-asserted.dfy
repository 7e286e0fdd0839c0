method M() { assert 1 as int; }
