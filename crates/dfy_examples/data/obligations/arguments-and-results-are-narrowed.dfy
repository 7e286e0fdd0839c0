method Half(n: nat) returns (r: int)
  ensures r <= n
{
  r := n / 2;
}

method Use(i: int) returns (m: nat) {
  m := Half(i);
}

method UseOfLiteral() returns (m: nat) {
  m := Half(8);
}

method UseOfSum(i: nat) returns (k: int) {
  k := Half(i + i);
}
