method M() { assert 'a' as char; }
