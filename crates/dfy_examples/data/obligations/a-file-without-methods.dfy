newtype small = x: int | 0 <= x < 100
newtype other = x: int | 1 <= x < 9 witness 3
