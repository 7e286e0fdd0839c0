method M() { var x: int; }
