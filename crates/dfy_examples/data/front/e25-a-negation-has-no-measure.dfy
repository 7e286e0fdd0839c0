method M(b: bool) { while !b { } }
