method F(a: int, b: int, c: bool)
  requires c ==> a > b
{ }

method M(a: int, b: int, c: int) {
  F(a / b, b / c, a % c == 0 && c % a == 0);
}
