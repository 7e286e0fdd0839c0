newtype num = x: int | 0 <= x < 20000

method Count(n: num)
  requires n <= 100
{
  var i: num := 0;
  while i != n {
    i := i + 1;
  }
  print i, "\n";
}

method Main() {
  Count(10);
}
