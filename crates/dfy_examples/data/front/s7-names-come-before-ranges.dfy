newtype n = x: int | true
newtype n = x: int | 0 <= x < 9
