method M() { if true { var x := 1; } else { x := 2; } }
