newtype n = x: int | 0 <= x < 9
newtype n = x: int | 0 <= x < 9
