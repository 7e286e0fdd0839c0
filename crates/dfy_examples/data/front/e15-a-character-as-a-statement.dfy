method M() { 'a'; }
