newtype u32 = x: int | 0 <= x < 0x1_0000_0000

// A product by sums.
method Product(a: u32, b: u32) returns (p: u32)
  requires a <= 60000 && b <= 60000
  ensures p as int == (a as int) * (b as int)
{
  p := 0;
  var i: u32 := 0;
  while i < b
    invariant i <= b
    invariant p as int == (a as int) * (i as int)
    decreases b - i
  {
    p := p + a;
    i := i + 1;
  }
}

method Main() {
  var p: u32 := Product(12, 13);
  print p, "\n";
}
