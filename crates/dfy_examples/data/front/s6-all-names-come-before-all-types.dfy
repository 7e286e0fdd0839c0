method A() { var x: int := true; }
method B() { print y; }
