newtype i8 = x: int | -128 <= x < 128
newtype j = x: int | 0 <= x < 9
method M(i: int, n: nat, c: char, a: i8) { print (1 + 2) as char, -1 as i8, 1 as nat as int as i8 as char as int, i as nat, n as int, c as nat, a as j; }
