method M(i: int) { while (i) decreases 1 { } }
