method M() { if true { var x := 1; } else if x == 1 { } }
