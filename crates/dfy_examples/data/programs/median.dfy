newtype i32 = x: int | -0x8000_0000 <= x < 0x8000_0000

method Median(a: i32, b: i32, c: i32) returns (m: i32)
  ensures m == a || m == b || m == c
  ensures a <= m <= b || b <= m <= a || a <= m <= c || c <= m <= a || b <= m <= c || c <= m <= b
{
  m := a;
  if a < b {
    if c < a { m := a; } else if c < b { m := c; } else { m := b; }
  } else {
    if c < b { m := b; } else if c < a { m := c; } else { m := a; }
  }
}

method Main() {
  var m: i32 := Median(3, 9, 5);
  print m, "\n";
}
