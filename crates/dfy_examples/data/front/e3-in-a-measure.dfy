method M() decreases 1 + true { }
