method M() { true(); }
