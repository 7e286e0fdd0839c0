method M(a: int) returns (r: int)
  ensures r >= 0
{
  r := a;
  if a < 0 { r := -a; }
}
