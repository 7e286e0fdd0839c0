method M(a: int, b: bool) returns (r: int)
  ensures r == a
{
  r := a;
  if b {
    assert b;
  } else {
    assert !b;
  }
}
