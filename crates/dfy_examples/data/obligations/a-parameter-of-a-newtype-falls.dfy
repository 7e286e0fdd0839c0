newtype small = x: int | 0 <= x < 100

method Down(s: small, k: int) returns (r: small)
  ensures r == 0
{
  r := s;
  if s > 0 { r := Down(s - 1, k + 5); }
}
