method A() { var x := 1 + true; }
method A() { }
