method M(x: int) { match x { } }
