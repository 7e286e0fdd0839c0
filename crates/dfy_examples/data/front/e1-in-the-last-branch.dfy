method M(b: bool) returns (x: int) { if b { } else if b { } else { x := 'a'; } }
