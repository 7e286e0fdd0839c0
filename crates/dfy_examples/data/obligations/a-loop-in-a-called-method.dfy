method Count(n: int) returns (r: int)
  requires 0 <= n
  ensures r == n
{
  r := 0;
  while r < n
    invariant r <= n
    decreases n - r
  {
    r := r + 1;
  }
}

method Main() {
  var x: int := Count(3);
  assert x == 3;
}
