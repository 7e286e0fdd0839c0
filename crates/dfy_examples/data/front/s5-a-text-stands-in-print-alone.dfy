method M() { var s := "a"; }
