method F(n: int) returns (r: int)
  requires n >= 0
  ensures r >= 0
{
  r := 0;
  if n > 0 {
    r := F(n - 1);
    r := F(r);
  }
}
