newtype small = x: int | 0 <= x < 100

method M(n: int) {
  var s: small;
  var i: int := 0;
  while i < n {
    s := 3;
    assert s + 1 == 4;
    i := i + 1;
  }
}
