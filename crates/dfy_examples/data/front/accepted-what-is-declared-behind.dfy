method M(a: n) { print 1 as n; N(); }
method N() { M(3); }
newtype n = x: int | 0 <= x < 9
