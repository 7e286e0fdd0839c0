method M(i: int) { while i < 3 invariant true requires true decreases i { } }
