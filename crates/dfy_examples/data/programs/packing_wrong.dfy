newtype i32 = x: int | -0x8000_0000 <= x < 0x8000_0000

// The least multiple of k that is not below x.
method Up(x: i32, k: i32) returns (y: i32)
  requires 0 <= x <= 1000000 && 0 < k <= 1000
  ensures x <= y < x + k
  ensures y % k == 0
{
  y := (x + k - 1) / k * k;
}

method Main() {
  var y: i32 := Up(10, 4);
  assert y == 8;
  print y, "\n";
}
