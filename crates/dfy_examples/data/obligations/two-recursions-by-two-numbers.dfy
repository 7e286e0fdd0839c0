method Ack(m: int, n: int) returns (r: int)
  requires m >= 0 && n >= 0
  ensures r >= 0
{
  if m == 0 {
    r := n + 1;
  } else if n == 0 {
    r := Ack(m - 1, 1);
  } else {
    var k: int := Ack(m, n - 1);
    r := Ack(m - 1, k);
  }
}
