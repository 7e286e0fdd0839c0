method M() { var b: bool, c: char, i: int, n: nat := true, 'a', 1, 2; b, c, i, n := false, 'b', n, i; }
