method M(n: int) { var i: int := 0; while i < n invariant i * 2 { i := i + 1; } }
