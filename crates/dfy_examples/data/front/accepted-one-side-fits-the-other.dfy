method M(n: nat, i: int, b: bool) { print n == i, i != n, b == true; }
