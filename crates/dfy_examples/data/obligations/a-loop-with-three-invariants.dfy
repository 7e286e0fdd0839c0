newtype small = x: int | 0 <= x < 100

method M(n: small) returns (r: small)
  requires n < 50
  ensures r == n + n
{
  r := 0;
  var i: small := 0;
  while i < n
    invariant i <= n
    invariant r == i + i
    invariant r <= n + n
  {
    i := i + 1;
    r := r + 2;
  }
}
