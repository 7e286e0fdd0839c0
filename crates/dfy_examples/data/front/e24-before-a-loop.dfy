method M() { if true { } else { break; } while 1 < 2 { } }
