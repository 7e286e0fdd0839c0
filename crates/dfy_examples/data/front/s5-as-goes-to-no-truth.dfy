method M(x: int) { print x as bool; }
