method First(a: int) returns (r: int) {
  r := 1;
  return;
  assert a == 0;
}

method InABranch(a: int) returns (r: int)
  ensures r >= a
{
  r := a;
  if a < 0 {
    return;
    assert false;
  }
  assert a >= 0;
}

method Both(a: int) returns (r: int)
  ensures r >= 0
{
  if a < 0 {
    return -a;
  } else {
    return a;
  }
  assert false;
}

method Given(a: int) returns (r: int) {
  return 1;
  r := a / 0;
}
