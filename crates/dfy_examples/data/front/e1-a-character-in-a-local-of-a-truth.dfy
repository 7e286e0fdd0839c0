method M() { var b: bool := 'a'; }
