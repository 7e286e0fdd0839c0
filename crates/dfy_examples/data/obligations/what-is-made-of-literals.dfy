newtype small = x: int | 0 <= x < 100

method M(x: small, n: nat) returns (b: bool, m: nat) {
  var s: small := 1 + 2 * 3;
  m := 1 - 2;
  b := 1 + 98 <= x;
  b := 0 <= n < 10;
  b := 1 / 0 == 1;
}
