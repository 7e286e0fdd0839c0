newtype n = x: int | true
method A() { print 1 + true; }
