newtype i32 = x: int | -0x8000_0000 <= x < 0x8000_0000
newtype i64 = x: int | -0x8000_0000_0000_0000 <= x < 0x8000_0000_0000_0000

// The whole square root, with the next square carried along.
method Root(n: i32) returns (r: i32)
  requires 0 <= n
  ensures 0 <= r && (r as int) * (r as int) <= n as int
  ensures n as int < (r as int + 1) * (r as int + 1)
{
  r := 0;
  var next: i64 := 1;
  while next <= n as i64
    invariant 0 <= r <= n
    invariant r as int < next as int
    invariant next as int == (r as int + 1) * (r as int + 1)
    invariant (r as int) * (r as int) <= n as int
    decreases n - r
  {
    r := r + 1;
    next := next + 2 * (r as i64) + 1;
  }
}

method Main() {
  var r: i32 := Root(99);
  assert r == 10;
  print r, "\n";
}
