newtype n = x: int | 1 + true <= x < 9
