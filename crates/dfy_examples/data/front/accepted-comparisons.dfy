method M(a: int, b: bool) { print 'a' == 'b', true != false, a == 1 == 2, 1 < a <= 2 == 3 < 4, 4 >= a > 2 == 1, b == (1 < 2); }
