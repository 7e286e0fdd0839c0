method Main() {
  var i: int := 0;
  while i < 10
    invariant i == 0
  {
    i := i + 1;
  }
}
