newtype num = x: int | 0 <= x < 20000

method Count(n: num)
  requires n <= 100
{
  var i: num := 0;
  while i != n
    invariant i <= n
    decreases n - i
  {
    i := i + 1;
  }
  print i, "\n";
}

method Main() {
  Count(10);
}
