method A() { assert true && 1; }
method B() { print 1 + true; }
