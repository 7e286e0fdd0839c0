method Square(n: int) returns (r: int)
  requires n >= 0
  ensures r == n * n
{
  r := 0;
  var i: int := 0;
  while i < n
    invariant 0 <= i <= n
    invariant r == i * n
  {
    var j: int := 0;
    while j < n
      invariant 0 <= j <= n
      invariant r == i * n + j
    {
      r := r + 1;
      j := j + 1;
    }
    i := i + 1;
  }
}
