method M() { print "a" + "b"; }
