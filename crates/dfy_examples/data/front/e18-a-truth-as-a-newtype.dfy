newtype i8 = x: int | -128 <= x < 128
method M() { print true as i8; }
