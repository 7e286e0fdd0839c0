newtype n = x: int | 0 <= y < 9
