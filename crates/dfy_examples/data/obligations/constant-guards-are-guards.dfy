method M(a: int) returns (r: int)
  ensures r == a
{
  if true {
    r := a;
  } else {
    assert false;
    r := 0;
  }
  if false { assert false; }
}
