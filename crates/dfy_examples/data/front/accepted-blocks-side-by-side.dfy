method M() { { var x := 1; } { var x := true; } if true { var x := 'a'; } else { var x := 1; } }
