method M() returns r: int { }
