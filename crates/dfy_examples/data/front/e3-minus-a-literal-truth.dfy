method M() { print -true; }
