method A() { var x: int; print x; }
method B() returns (r: int) { }
