method A() returns (r: int) { }
method B() { var x: int; print x; }
