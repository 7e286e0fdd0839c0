method M() { var b: bool := (1) as int; }
