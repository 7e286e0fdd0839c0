method M(i: int) { while true { while i < 3 { } } }
