method M() ; { }
