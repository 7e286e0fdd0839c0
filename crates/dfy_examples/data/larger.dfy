// Two methods with contracts. `Distance` would be wrong without its `requires`: -128 has no opposite here.
newtype i8 = x: int | -128 <= x < 128

method Larger(a: i8, b: i8) returns (m: i8)
  ensures a <= m && b <= m
  ensures m == a || m == b
{
  if a < b { m := b; } else { m := a; }
}

method Distance(a: i8) returns (d: i8)
  requires -128 < a
  ensures d >= 0
{
  if a < 0 { d := -a; } else { d := a; }
  assert d == a || d == -a;
}

method Main() {
  var x: i8 := -7;
  var y: i8 := x - 3;
  print x, " is above ", y, ": ", y < x, "\n";
}
