newtype small = x: int | -100 <= x <= 100

method M(a: small, b: small, c: small) returns (r: small) {
  r := a + b - c * a + -1;
}

method N(a: small) returns (r: small) {
  r := -(a * a * a);
}
