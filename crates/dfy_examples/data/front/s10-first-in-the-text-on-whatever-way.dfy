method M() { var x; if true { print x; } x := 1; }
