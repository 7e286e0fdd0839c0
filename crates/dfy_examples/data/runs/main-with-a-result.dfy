newtype i8 = x: int | -128 <= x < 128
method Main() returns (r: i8) { r := 1; }