method M() { var b: bool := - 5; }
