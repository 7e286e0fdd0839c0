newtype small = x: int | 0 <= x < 100

method ToInt(c: char) returns (i: int) {
  i := c as int;
}

method ToNewtype(c: char) returns (s: small) {
  s := c as small;
}

method OfInt(i: int) returns (c: char) {
  c := i as char;
}

method OfNewtype(s: small) returns (c: char) {
  c := s as char;
}

method Next(c: char) returns (d: char)
  requires c < 'z'
  ensures c < d
{
  d := (c as int + 1) as char;
}
