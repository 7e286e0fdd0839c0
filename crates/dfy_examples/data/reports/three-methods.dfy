newtype i8 = x: int | -128 <= x < 128
newtype b = x: int | 0 <= x < 2
method M() { print 1; }
method N(a: b) { assert a == 0; }
method O() { }