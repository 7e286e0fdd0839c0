newtype i8 = x: int | -128 <= x < 128
method M(c: char, n: nat) { print 'a' as i8, 1 as char as int as i8, c as nat, n as int; }
