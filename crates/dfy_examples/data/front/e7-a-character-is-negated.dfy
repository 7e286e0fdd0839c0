method M() { print !'a'; }
