method M(i: int) { while i < 3 { } if true { break; } }
