method M() { var x := 0x; }
