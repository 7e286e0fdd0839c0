newtype i8 = x: int | -128 <= x < 128
method M(a: i8, b: bool, i: int, n: nat) { while b decreases 1 { } while !b decreases b { } while 1 < 2 { } while a < 3 { } while 3 > n { } while i >= i { } while (i < 3 && b) && b { } while && (i <= 3) { } while (i < 3 && b) || b decreases 0 { } }
