method F(a: int) returns (r: int)
  requires a >= 0
  ensures r >= a
{
  if a == 0 { r := 0; return; }
  var x: int, y: int := F(a - 1), F(0);
  r := x + y + 1;
}

method Same(a: int) returns (r: int) {
  r, r := F(a), F(a);
}

method Turned(a: int, b: int) returns (r: int, s: int)
  ensures s == a
{
  r, s := a, b;
  s, r := r, F(s);
}
