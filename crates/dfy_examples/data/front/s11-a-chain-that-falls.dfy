newtype n = x: int | 9 > x >= 0
