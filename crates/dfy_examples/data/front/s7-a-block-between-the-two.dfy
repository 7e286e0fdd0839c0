method M() { if true { } else { var x := 1; { } var x := 2; } }
