method M() { for }
