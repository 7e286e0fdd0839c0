method M(i: int) { while 0 < i < 9 { } }
