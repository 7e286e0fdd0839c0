newtype small = x: int | 0 <= x < 100

method M(n: small) {
  var i: small := n;
  while i > 0
    decreases i - 1
  {
    i := i - 1;
  }
}
