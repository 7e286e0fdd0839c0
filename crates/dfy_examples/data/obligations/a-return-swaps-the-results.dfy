method M(a: int, b: int) returns (r: int, s: int)
  ensures r == b
  ensures s == a
{
  r, s := a, b;
  return s, r;
}
