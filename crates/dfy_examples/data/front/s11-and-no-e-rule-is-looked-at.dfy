newtype n = x: int | true
