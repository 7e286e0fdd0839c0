method Pair() returns (a: int, b: int)
  ensures a == b
{
  a, b := 1, 1;
}

method Two(a: int, b: int) returns (x: int) {
  x, x := a, b;
}

method Three(a: int) returns (x: int) {
  x, x, x := a, a + 1, a;
}

method Results() returns (x: int) {
  x, x := Pair();
}

method Apart(a: int, b: int) returns (x: int, y: int) {
  x, y := a, b;
}
