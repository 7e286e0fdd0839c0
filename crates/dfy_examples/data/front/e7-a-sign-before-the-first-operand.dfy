method M(b: bool, i: int) { print || i || b; }
