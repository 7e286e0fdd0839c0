newtype num = x: int | 0 <= x < 20000

method Twice(n: num) returns (r: num)
{
  r := n + n;
}

method Main() {
  var t := Twice(10);
  print t, "\n";
}
