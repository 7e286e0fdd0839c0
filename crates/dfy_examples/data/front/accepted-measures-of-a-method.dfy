method M(a: int, b: bool, c: char) decreases a, b, c decreases 1 { }
