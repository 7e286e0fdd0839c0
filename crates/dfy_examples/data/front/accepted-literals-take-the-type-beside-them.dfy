newtype i8 = x: int | -128 <= x < 128
method M(a: i8) { print 1 as i8 + a, -(1) + a, (1 - 2) * (3 + a), a < 1 + 2 < a, 1 == a, a / 2 % 3; }
