method M() { print -'a'; }
