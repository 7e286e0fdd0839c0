method M(a: int) { while a < 3 { a := a + 1; } }
