method M() ensures 1 { }
