method M() { var x: M := 1; }
