newtype small = x: int | -10 <= x <= 10

method M(a: small) returns (r: small) {
  r := --a;
  r := - 5;
  r := -(5);
  r := a - 5;
  r := a - -5;
}
