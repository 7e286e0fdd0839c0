method M() { x := 1; var x: int; }
