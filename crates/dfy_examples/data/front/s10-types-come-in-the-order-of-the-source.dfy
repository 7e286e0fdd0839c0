method A() { var x; }
newtype n = x: int | true
