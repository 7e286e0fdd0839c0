method M() { var b: bool := 1 as nat; }
