newtype small = x: int | 0 <= x < 100
newtype wide = x: int | -1000 <= x <= 1000

method ToNewtype(a: int) returns (s: small) {
  s := a as small;
}

method ToNat(a: int) returns (n: nat) {
  n := a as nat;
}

method ToInt(s: small) returns (i: int) {
  i := s as int;
}

method Between(w: wide) returns (s: small) {
  s := w as small;
}

method Twice(a: int) returns (s: small) {
  s := a as nat as small;
}

method OfSum(a: int, s: small) returns (t: small) {
  t := (a + 1) as small + s;
}

method OfNat(n: nat) returns (i: int) {
  i := n as int;
}
