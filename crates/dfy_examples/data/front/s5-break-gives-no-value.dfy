method M() { break 1; }
