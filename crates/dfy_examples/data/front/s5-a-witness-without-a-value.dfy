newtype n = x: int | 0 <= x < 9 witness method M() { }
