method M(a: int) returns (r: int)
  ensures r >= a
{
  var i: int := a;
  while true
    decreases 10 - i
  {
    if i >= 10 { return i; }
    i := i + 1;
  }
  assert false;
  r := i;
}
