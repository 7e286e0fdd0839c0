newtype i32 = x: int | -0x8000_0000 <= x < 0x8000_0000

// The sum of the numbers below n that divide it.
method Parts(n: i32) returns (s: i32)
  requires 1 <= n <= 1000
  ensures 0 <= s
{
  s := 0;
  var d: i32 := 1;
  while d < n
    invariant 1 <= d <= n
    invariant 0 <= s <= 1000 * (d - 1)
  {
    if n % d == 0 { s := s + d; }
    d := d + 1;
  }
}

method Main() {
  var n: i32 := 0;
  while n <= 30
    invariant 0 <= n <= 31
  {
    var s: i32 := Parts(n);
    if s == n { print n, " "; }
    n := n + 1;
  }
}
