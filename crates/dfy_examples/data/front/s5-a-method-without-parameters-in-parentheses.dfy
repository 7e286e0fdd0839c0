method M { }
