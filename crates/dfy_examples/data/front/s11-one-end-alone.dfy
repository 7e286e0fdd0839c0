newtype n = x: int | 0 <= x
