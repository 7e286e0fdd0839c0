method M() { }
newtype M = x: int | 0 <= x < 9
