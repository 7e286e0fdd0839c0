method M(n: int) returns (k: int)
  ensures k == 0
{
  k := 0;
  var i: int := n;
  while i > 0 {
    var j: int := i;
    while j > 0 {
      j := j - 1;
      k := k + j;
    }
    assert k == 0;
    i := i - 1;
  }
}
