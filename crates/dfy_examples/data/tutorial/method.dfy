newtype num = x: int | 0 <= x < 20000

method Twice(n: num) returns (r: num)
  requires n <= 100
{
  r := n + n;
}

method Main() {
  var t := Twice(10);
  print t, "\n";
}
