newtype bit = x: int | 0 <= x < 2
method Even(n: bit) returns (b: bool) { if n == 0 { b := true; } else { b := Odd(n); } }
method Odd(n: bit) returns (b: bool) { if n == 0 { b := false; } else { b := Even(n - 1); } }