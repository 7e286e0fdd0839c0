newtype num = x: int | 0 <= x < 20000

method Sum(n: num) returns (s: num)
  requires n <= 100
  ensures 2 * s == n * (n + 1)
{
  s := 0;
  var i: num := 0;
  while i < n
    invariant i <= n
    invariant 2 * s == i * (i + 1)
  {
    i := i + 1;
    s := s + i;
  }
}

method Mean(n: num) returns (m: num)
  requires n <= 100
{
  var s := Sum(n);
  m := s / n;
}

method Main() {
  var m := Mean(9);
  print m, "\n";
}
