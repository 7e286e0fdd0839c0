newtype small = x: int | 0 <= x < 100

method M(a: int, b: int)
  decreases a / b
{
  if a > 0 { M(a - 1, b); }
}

method S(s: small)
  decreases s + 1
{
  if s > 0 { S(s - 1); }
}

method N(s: small) {
  S(s);
}
