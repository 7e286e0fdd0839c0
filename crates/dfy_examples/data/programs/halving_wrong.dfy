newtype i32 = x: int | -0x8000_0000 <= x < 0x8000_0000
newtype i64 = x: int | -0x8000_0000_0000_0000 <= x < 0x8000_0000_0000_0000

// The whole square root by halving a range.
method Root(n: i32) returns (r: i32)
  requires 0 <= n
  ensures 0 <= r && (r as int) * (r as int) <= n as int
  ensures n as int < (r as int + 1) * (r as int + 1)
{
  var low: i64, high: i64 := 0, n as i64 + 1;
  while low + 1 < high
    invariant 0 <= low < high <= n as i64 + 1
    invariant (low as int) * (low as int) <= n as int
    invariant n as int < (high as int) * (high as int)
    decreases high - low
  {
    var middle: i64 := (low + high) / 2;
    if middle * middle <= n as i64 { low := middle; } else { high := middle; }
  }
  r := low as i32;
}

method Main() {
  var r: i32 := Root(1000);
  assert r == 32;
  print r, "\n";
}
