newtype n = x: int | 1 <= x < 9
