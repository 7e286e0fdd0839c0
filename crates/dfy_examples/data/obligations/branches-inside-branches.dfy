method Max(a: int, b: int, c: int) returns (m: int)
  ensures m >= a && m >= b && m >= c
{
  if a < b {
    if b < c { m := c; } else { m := b; }
  } else {
    if a < c { m := c; } else { m := a; }
  }
}
