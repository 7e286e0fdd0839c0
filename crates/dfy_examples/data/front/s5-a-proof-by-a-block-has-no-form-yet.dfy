method M() { assert true by { } }
