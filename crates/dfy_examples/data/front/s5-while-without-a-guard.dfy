method M() { while { } }
