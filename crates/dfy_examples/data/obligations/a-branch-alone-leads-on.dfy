method M(a: int) returns (r: int)
  ensures r >= 0
{
  if a < 0 {
    r := 0;
    return;
  } else {
    r := a;
  }
  assert a >= 0;
  r := r + 1;
}
