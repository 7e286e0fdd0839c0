newtype i32 = x: int | -0x8000_0000 <= x < 0x8000_0000

method Steps(n: i32) returns (k: i32)
  requires 1 <= n
  ensures 0 <= k <= 1000
{
  var x: i32 := n;
  k := 0;
  while x != 1 && k < 1000
    invariant 1 <= x
    invariant 0 <= k <= 1000
    decreases 1000 - k
  {
    if x % 2 == 0 { x := x / 2; }
    else if x <= 700000000 { x := 3 * x + 1; }
    else { x := 1; }
    k := k + 1;
  }
}

method Main() {
  var k: i32 := Steps(27);
  print k, "\n";
}
