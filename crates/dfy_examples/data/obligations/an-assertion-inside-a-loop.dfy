method M(n: int) {
  var i: int := 0;
  while i < n
    invariant 0 <= i
  {
    assert i >= 0;
    assert i < n;
    i := i + 1;
    assert i > 0;
    assert i < n;
  }
}
