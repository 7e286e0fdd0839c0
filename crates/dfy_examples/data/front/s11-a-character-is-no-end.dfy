newtype n = x: int | 'a' <= x < 9
