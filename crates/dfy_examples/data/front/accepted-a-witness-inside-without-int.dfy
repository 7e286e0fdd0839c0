newtype n = x | 1 <= x < 9 witness 3
