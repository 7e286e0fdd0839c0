newtype num = x: int | 0 <= x < 20000

method Twice(n: num) returns (r: num)
  requires n <= 100
  ensures r == n + n
{
  r := n + n;
}

method Four(n: num) returns (r: num)
  requires n <= 50
  ensures r == 4 * n
{
  r := Twice(n);
  r := Twice(r);
}

method Main() {
  var t := Four(10);
  assert t == 40;
  print t, "\n";
}
