method M() { print true + 1 + 'a'; }
