method M(n: int) returns (r: int)
  requires n >= 0
  ensures r >= 0
{
  r := n;
  while true
    invariant r >= 0
    decreases r
  {
    if r < 2 { break; }
    r := r - 2;
  }
}
