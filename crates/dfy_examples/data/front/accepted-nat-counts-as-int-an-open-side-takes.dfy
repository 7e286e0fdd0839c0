newtype i8 = x: int | -128 <= x < 128
method M(n: nat, i: int, a: i8) { print n < i, i <= n, 1 < n, a < (1 + 2); }
