method M(a: int, b: bool) returns (r: int)
  ensures r <= a || !b
{
  r := 0;
  if b {
    while r > a {
      r := r - 1;
    }
  } else {
    r := 1;
  }
}
