newtype i32 = x: int | -0x8000_0000 <= x < 0x8000_0000

// The sum of the first numbers is half a product.
method Sum(n: i32) returns (s: i32)
  requires 0 <= n <= 1000
  ensures 2 * (s as int) == (n as int) * (n as int + 1)
{
  s := 0;
  var i: i32 := 0;
  while i < n
    invariant 0 <= i <= n && 0 <= s <= 1000 * i
    invariant 2 * (s as int) == (i as int) * (i as int + 1)
    decreases n - i
  {
    i := i + 1;
    s := s + i;
  }
}

method Main() {
  var s: i32 := Sum(100);
  print s, "\n";
}
