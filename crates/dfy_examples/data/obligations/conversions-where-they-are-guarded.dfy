newtype small = x: int | 0 <= x < 100

method M(a: int, c: char, s: small) returns (r: bool) {
  r := 0 <= a < 100 && a as small == s;
  r := a < 0 || a as nat == 3;
  r := c < 'a' ==> c as small + s < s;
  r := a as char == c || (c as int / a) as small == s;
}
