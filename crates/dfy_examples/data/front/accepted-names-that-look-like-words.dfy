method M() { var bv, bv8x, array2x, continue', _a, a? := 1, 2, 3, 4, 5, 6; }
