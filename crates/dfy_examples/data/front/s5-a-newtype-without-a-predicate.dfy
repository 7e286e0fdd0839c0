newtype n = x: int | method M() { }
