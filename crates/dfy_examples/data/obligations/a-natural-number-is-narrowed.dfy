method Less(n: nat) returns (m: nat) {
  m := n - 1;
}

method Copy(n: nat) returns (m: nat) {
  m := n;
}

method OfInt(i: int) returns (m: nat) {
  m := i;
}

method Give(i: int) returns (r: nat)
  ensures r >= 0
{
  return i * i;
}
