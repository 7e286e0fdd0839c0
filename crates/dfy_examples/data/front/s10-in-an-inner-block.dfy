method M() { { var x; } }
