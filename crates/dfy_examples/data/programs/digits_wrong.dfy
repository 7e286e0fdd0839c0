newtype i32 = x: int | -0x8000_0000 <= x < 0x8000_0000

method Digits(n: i32) returns (k: i32)
  requires 0 <= n
  ensures 1 <= k
{
  var x: i32 := n;
  k := 1;
  while x >= 10
    invariant 0 <= x && 1 <= k
    invariant k as int + x as int <= n as int + 1
  {
    x := x / 10;
    k := k + 1;
  }
}

method Main() {
  var k: i32 := Digits(90210);
  assert k == 5;
}
