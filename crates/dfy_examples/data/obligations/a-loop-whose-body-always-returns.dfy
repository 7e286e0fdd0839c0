method M(a: int) returns (r: int)
  ensures r == a
{
  while a > 0
    invariant a % 2 == 0 || a % 2 == 1
    decreases 0
  {
    return a;
  }
  r := a;
}
