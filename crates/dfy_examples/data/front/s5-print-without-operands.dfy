method M() { print ; }
