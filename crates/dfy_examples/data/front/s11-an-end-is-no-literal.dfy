newtype n = x: int | 0 <= x < 4 + 5
