method Find(n: int, k: int) returns (r: int)
  ensures r == -1 || r == k
{
  var i: int := 0;
  while i < n
    invariant 0 <= i
  {
    if i == k { return i; }
    i := i + 1;
  }
  r := -1;
}
