method M(a: int) returns (r: int)
  requires a >= 0
  ensures r >= 0
{
  r := 0;
  while r < a
    invariant r >= 0
  {
    var k: int := r;
    while k > 0
      invariant k >= 0
    {
      if k == a { break; }
      k := k - 1;
    }
    assert k >= 0;
    if k > 5 { break; }
    r := r + 1;
  }
}
