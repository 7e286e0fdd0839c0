method Main() {
  var i: int := 0;
  while i < 3 { i := i + 1; }
  assert i == 3;
}
