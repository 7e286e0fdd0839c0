newtype n = n: int | 0 <= n < 9
