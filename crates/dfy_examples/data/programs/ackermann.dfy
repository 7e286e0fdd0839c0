method Ack(m: nat, n: nat) returns (r: nat)
  decreases m, n
{
  if m == 0 { r := n + 1; }
  else if n == 0 { r := Ack(m - 1, 1); }
  else {
    var t: nat := Ack(m, n - 1);
    r := Ack(m - 1, t);
  }
}
