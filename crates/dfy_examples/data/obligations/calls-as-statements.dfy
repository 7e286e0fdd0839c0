newtype small = x: int | 0 <= x < 100

method Give(a: small) returns (r: small)
  requires a > 0
{
  r := a;
}

method Take(a: small, b: small) {
  Give(a);
  Give(a + b);
  Nothing();
  Give(0);
}

method Nothing() { }
