newtype i32 = x: int | -0x8000_0000 <= x < 0x8000_0000

// The least x for which 7 times x is at least t.
method Find(t: i32) returns (x: i32)
  requires 0 <= t <= 700
  ensures 0 <= x <= 100 && 7 * x >= t
  ensures x == 0 || 7 * (x - 1) < t
{
  var lo: i32, hi: i32 := 0, 100;
  while lo < hi
    invariant 0 <= lo <= hi <= 100
    invariant 7 * hi >= t
    invariant lo == 0 || 7 * (lo - 1) < t
  {
    var m: i32 := lo + (hi - lo) / 2;
    if 7 * m >= t { hi := m; } else { lo := m + 1; }
  }
  x := lo;
}

method Main() {
  var x: i32 := Find(50);
  print x, "\n";
}
