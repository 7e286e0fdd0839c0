newtype i32 = x: int | -0x8000_0000 <= x < 0x8000_0000

method Main() {
  var x: i32 := 27;
  var k: i32 := 0;
  while x != 1 && k < 1000
    invariant 1 <= x
    invariant 0 <= k <= 1000
    decreases 1000 - k
  {
    if x % 2 == 0 { x := x / 2; } else { x := 3 * x + 1; }
    k := k + 1;
  }
}
