newtype i8 = x: int | -128 <= x < 128
method M(a: i8) { print 1 == 2, 'a' <= 'b', 1 + 2 <= 3 * 4, a == 1 + 1, (1) < a; }
