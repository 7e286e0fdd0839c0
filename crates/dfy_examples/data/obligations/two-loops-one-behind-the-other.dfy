method M(n: int) {
  var i: int := 0;
  while i < n
    invariant i >= 0
  {
    i := i + 1;
  }
  while i > 0
    invariant i <= n || i >= 0
  {
    i := i - 1;
  }
  assert i <= 0;
}
