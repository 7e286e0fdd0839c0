newtype small = x: int | 0 <= x < 100

method Next(a: small) returns (b: small, c: bool)
  requires a < 99
  ensures b == a + 1
  ensures c <==> b == 99
{
  b := a + 1;
  c := b == 99;
}

method Use(a: small) returns (r: small)
  requires a < 98
  ensures r == a + 2
{
  var done: bool;
  r, done := Next(a);
  assert !done || r == 99;
  r, done := Next(r);
}
