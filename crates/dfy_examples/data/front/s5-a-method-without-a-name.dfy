method () { }
