newtype n = x: int | 0 <= (x) < 9
