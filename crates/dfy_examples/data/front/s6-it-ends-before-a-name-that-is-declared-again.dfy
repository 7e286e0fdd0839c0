method M() { var x := z; var x := 1; }
