method M(b: bool, i: int, n: nat) { while (i < 3) && b { } while && 3 >= i { } while (i > n) { } while true decreases 3 - i, b { } }
