method A() { print 1 + true; + }
