method M(i: int) { while i + true < 3 { } }
