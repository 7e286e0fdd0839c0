method M(a: int) {
  var i: int := 5;
  while i < a { }
  assert i == 5;
}
