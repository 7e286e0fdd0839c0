newtype o = x: int | 0 <= x < 1
method Main(a: o) { }