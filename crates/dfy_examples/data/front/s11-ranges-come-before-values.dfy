method A() returns (r: int) { }
newtype n = x: int | true
