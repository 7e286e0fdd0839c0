method M() { print (true as int) as int; }
