method M() { ghost var x := 1; }
