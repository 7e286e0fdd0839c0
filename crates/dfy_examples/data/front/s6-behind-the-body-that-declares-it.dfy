method M(i: int) { while i < 3 { var x := 1; { break; } } x := 2; }
