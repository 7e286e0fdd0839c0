method M(a: bool, b: bool, c: char, d: char)
  requires a == b
  requires c != d
  ensures a != !b
  ensures c < d || d < c
  ensures c <= 'b' <= d ==> c < d
{ }
