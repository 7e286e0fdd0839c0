newtype small = x: int | 0 <= x < 100

method M(a: small, b: small)
  requires 1 + a < b
  ensures (a <= b)
  ensures !(b < a)
  ensures true && a < b
{
  assert
    a < b;
}
