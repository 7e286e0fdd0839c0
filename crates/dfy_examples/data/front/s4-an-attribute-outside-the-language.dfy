method {:axiom} M() { }
