method M() { var x := 1 + true; var y; }
