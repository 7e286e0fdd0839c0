newtype i32 = x: int | -0x8000_0000 <= x < 0x8000_0000

method Sum(n: i32) returns (s: i32)
  requires 0 <= n <= 1000
  ensures 0 <= s <= 1000 * n
{
  s := 0;
  var i: i32 := 0;
  while i < n
    invariant 0 <= i <= n
    invariant 0 <= s <= 1000 * i
  {
    i := i + 1;
    s := s + i;
  }
}

method Main() {
  var s: i32 := Sum(10);
  assert s == 55;
}
