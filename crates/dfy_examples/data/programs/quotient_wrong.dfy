newtype i32 = x: int | -0x8000_0000 <= x < 0x8000_0000

// A quotient and a remainder by subtraction.
method Divide(a: i32, b: i32) returns (q: i32, r: i32)
  requires 0 <= a && 0 < b
  ensures a as int == (q as int) * (b as int) + r as int
  ensures 0 <= r < b
{
  q, r := 0, a;
  while b <= r
    invariant 0 <= q && 0 <= r
    invariant q as int + r as int <= a as int
    invariant a as int == (q as int) * (b as int) + r as int
    decreases r
  {
    q, r := q + 1, r - b;
  }
}

method Main() {
  var q: i32, r: i32 := Divide(47, 5);
  assert q == 10;
  print q, " ", r, "\n";
}
