method A() { x := 1 + true; }
