method Step(a: int) returns (b: int)
  ensures b < a
{
  b := a - 1;
}

method M(n: int) {
  var i: int := n;
  var k: int := 0;
  while i > 0 {
    i := Step(i);
  }
  assert i <= 0;
  assert k == 0;
}
