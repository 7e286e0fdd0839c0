method M() { print y; }
