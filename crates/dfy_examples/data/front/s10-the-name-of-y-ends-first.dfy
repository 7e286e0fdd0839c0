method M() { var y; var x := 1 + true; }
