newtype i64 = x: int | -0x8000_0000_0000_0000 <= x < 0x8000_0000_0000_0000

// A power by squaring, in remainders.
method Power(b: i64, e: i64, m: i64) returns (r: i64)
  requires 0 <= b && 0 <= e && 1 < m <= 1000000
  ensures 0 <= r < m
{
  r := 1;
  var x: i64, n: i64 := b % m, e;
  while n != 0
    invariant 0 <= r < m && 0 <= x < m && 0 <= n
    decreases n
  {
    if n % 2 == 1 { r := r * x % m; }
    x := x * x % m;
    n := n / 2;
  }
}

method Main() {
  var r: i64 := Power(2, 10, 1000);
  print r, "\n";
}
