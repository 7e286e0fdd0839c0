newtype i8 = x: int | -128 <= x < 128
method M(n: nat, a: i8) { print n > a; }
