method M(b: bool) { var c: char := b && b && b; }
