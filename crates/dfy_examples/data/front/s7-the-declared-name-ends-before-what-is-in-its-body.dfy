method M() { }
method M() { print y; }
