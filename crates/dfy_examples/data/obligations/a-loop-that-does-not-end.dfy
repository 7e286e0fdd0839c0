method M(a: int) {
  var i: int := a;
  while i > 0
    invariant i >= 0
  {
    i := i + 1;
  }
}
