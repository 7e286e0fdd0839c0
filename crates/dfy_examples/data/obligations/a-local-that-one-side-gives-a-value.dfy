method M(c: bool) {
  var x: int;
  if c {
    x := 5;
    assert x == 5;
  }
  x := 1;
  assert x == 1;
}
