method M(i: int) requires i + 1 { }
