method M(i: int) { if true { } else if i { } }
