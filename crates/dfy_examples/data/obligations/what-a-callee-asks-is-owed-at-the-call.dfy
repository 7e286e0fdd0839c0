method Divide(a: int, b: int) returns (q: int)
  requires b != 0
  requires a / b >= 0
  ensures q * b <= a
{
  q := a / b;
}

method Use(a: int, b: int) returns (q: int) {
  q := Divide(a / 2, b);
}
