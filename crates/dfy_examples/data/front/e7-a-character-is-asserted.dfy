method M() { assert 'a'; }
