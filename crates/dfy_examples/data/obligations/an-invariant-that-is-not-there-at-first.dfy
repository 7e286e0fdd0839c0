method Main() {
  var i: int := 0;
  while i < 10
    invariant i >= 1
  {
    i := i + 1;
  }
}
