method M(n: int, k: int) returns (r: int)
  ensures r >= 0
{
  r := 0;
  var i: int := 0;
  while i < n
    invariant r >= 0
  {
    if i == k {
      return i;
    } else if i == 100 {
      r := 1;
      break;
    }
    r := r + i;
    i := i + 1;
  }
  assert r >= 0;
}
