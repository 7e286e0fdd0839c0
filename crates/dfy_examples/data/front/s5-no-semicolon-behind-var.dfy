method M() { var x := 1 }
