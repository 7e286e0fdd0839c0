newtype n = x: nat | 0 <= x < 9
