method M() { var x; if true { x := 1; } else { x := 'a'; } }
