newtype num = x: int | 0 <= x < 20000

method Main() {
  var n: num := 10;
  print n, "\n";
}
