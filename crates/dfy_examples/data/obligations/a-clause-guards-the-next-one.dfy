method M(a: int, b: int, c: int)
  requires b != 0
  requires a / b > c
  requires c != 0 ==> a / c > 0
  ensures b * c != 0 ==> a % (b * c) >= 0
{ }
