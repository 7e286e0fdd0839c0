newtype n = x: int | 0 <= 3 < 9
