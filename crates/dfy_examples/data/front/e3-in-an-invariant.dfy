method M(i: int) { while i < 3 invariant i + true == 1 { } }
