method M() { var x := 12a; }
