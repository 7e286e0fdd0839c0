method M(i: int) { if i + 1 { } }
