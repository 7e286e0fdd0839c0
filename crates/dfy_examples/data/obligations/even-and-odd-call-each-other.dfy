newtype i32 = x: int | -0x8000_0000 <= x < 0x8000_0000

method Even(n: i32) returns (b: bool)
  requires 0 <= n
{
  if n == 0 { b := true; } else { b := Odd(n - 1); }
}

method Odd(n: i32) returns (b: bool)
  requires 0 <= n
{
  if n == 0 { b := false; } else { b := Even(n - 1); }
}

method Main() {
  var b := Even(7);
  print b, "\n";
}
