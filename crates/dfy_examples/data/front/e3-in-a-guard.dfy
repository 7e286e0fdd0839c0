method M() { if 1 + true == 2 { } }
