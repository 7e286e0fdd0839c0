newtype i8 = x: int | -128 <= x < 128
method M(a: int, b: int, c: i8) { print (a + b) * c; }
