method M() { var x: int := (1 < 2); }
