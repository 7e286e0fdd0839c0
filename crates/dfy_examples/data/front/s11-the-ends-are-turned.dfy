newtype n = x: int | 5 <= x < 3
