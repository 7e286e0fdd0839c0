newtype i8 = x: int | -128 <= x < 128
newtype i32 = x: int | -0x8000_0000 <= x < 0x8000_0000
method M(a: i32) returns (r: i32) { r := 1 + a; }