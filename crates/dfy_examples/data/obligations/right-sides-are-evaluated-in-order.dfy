newtype small = x: int | 0 <= x < 100

method One(a: small) returns (x: small)
  requires a < 50
{
  x := a + a;
}

method Pair(a: small) returns (x: small, y: small)
  requires a < 60
{
  x, y := a, a;
}

method Swap(a: small, b: small) returns (x: small, y: small)
  ensures x == b && y == a
{
  x, y := a, b;
  x, y := y, x;
}

method Mixed(a: small, b: small) returns (x: small, y: small) {
  x, y := a + 1, b / a;
  x, y := One(x), y - x;
}

method Declared(a: small) {
  var x: small, y, z: small := a * a, a, 7;
  var v, w := Pair(z);
  print x, y, v, w;
}
