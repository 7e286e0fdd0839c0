newtype n : int | 0 <= x < 9
