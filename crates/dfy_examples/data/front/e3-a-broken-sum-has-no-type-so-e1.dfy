method M() { var x: bool := 1 + true; }
