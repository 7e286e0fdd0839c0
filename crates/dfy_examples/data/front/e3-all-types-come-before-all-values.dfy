method A() returns (r: int) { }
method B() { print 1 + true; }
