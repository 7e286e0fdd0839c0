newtype i8 = x: int | -128 <= x < 128
method M(b: bool) { print b as i8 as char as nat; }
