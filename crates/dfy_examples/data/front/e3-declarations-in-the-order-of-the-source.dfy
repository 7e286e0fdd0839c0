method A() { print 1 + true; }
newtype n = x: int | true
