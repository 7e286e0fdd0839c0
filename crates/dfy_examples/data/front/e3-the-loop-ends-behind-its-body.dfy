method M() { while true { print 1 + true; } }
