method M() { assert ; }
