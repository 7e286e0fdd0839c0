newtype i8 = x: int | -128 <= x < 128
newtype j = x: int | true