method M(a: int, b: int)
  requires a >= 0 && b >= 0
{
  var i: int, j: int := a, b;
  while i > 0 || j > 0
    invariant i >= 0
    invariant j >= 0
    decreases i, j
  {
    if j > 0 {
      j := j - 1;
    } else {
      i := i - 1;
      j := b;
    }
  }
}
