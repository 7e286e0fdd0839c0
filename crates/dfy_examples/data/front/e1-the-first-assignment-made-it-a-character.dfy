method M() { var x; x := 'a'; x := 1; }
