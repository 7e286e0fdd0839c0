method M(i: int) { if i { } }
