method P(a: int, b: bool) { }
method M() { P(1, 2); }
