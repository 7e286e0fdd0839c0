method M(i: int) returns (x: int) { while i < 3 { x := 'a'; } }
