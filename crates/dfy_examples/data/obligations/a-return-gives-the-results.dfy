method M(a: int) returns (r: int, s: int)
  ensures r <= s
{
  if a < 0 {
    return a, 0;
  }
  return 0, a;
}
