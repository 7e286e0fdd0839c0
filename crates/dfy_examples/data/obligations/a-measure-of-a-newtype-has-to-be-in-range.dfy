newtype small = x: int | 0 <= x < 100

method M(n: small) {
  var i: small := 0;
  while i != n
    invariant i <= n
    decreases n - i
  {
    i := i + 1;
  }
}
