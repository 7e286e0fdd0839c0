method M() { N(); }
