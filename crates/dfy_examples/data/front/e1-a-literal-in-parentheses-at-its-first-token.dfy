method M() { var b: bool := (1); }
