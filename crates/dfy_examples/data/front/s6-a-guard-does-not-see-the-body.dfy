method M() { while x < 3 { var x := 0; } }
