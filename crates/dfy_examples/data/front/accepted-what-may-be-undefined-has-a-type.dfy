method M(i: int) { print 1 / 0, 1 % 0, -(1), - -1, -(-i), i * i / i % i; }
