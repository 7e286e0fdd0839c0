newtype n = x | 0x0 <= x < 0x1_0
newtype k = y: int | - 8 < y <= 7
