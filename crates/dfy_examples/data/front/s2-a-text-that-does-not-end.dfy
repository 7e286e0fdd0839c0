method M() { print "a; } }
