method M(n: int) returns (r: int)
  requires n >= 3
  ensures r == n
{
  r := 0;
  while r < n
    invariant r <= n
  {
    if r == 7 { break; }
    r := r + 1;
  }
}
