method M() { var x, y; x := 1; y := x < 2; if y { print x; } }
