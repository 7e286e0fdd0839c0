method M() { for & 1; }
