method M(a: int, b: int) {
  var i: int := a;
  while i > 0
    invariant i / b >= 0
  {
    i := i - 1;
  }
}
