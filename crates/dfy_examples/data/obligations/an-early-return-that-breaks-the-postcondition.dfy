method M(a: int) returns (r: int)
  ensures r > a
{
  r := a;
  if a < 0 { return; }
  r := a + 1;
}
