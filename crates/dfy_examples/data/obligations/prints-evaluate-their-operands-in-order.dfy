newtype small = x: int | 0 <= x < 100

method Show(a: small, b: small, t: bool, c: char) {
  print a + b, " and ", a / b, "\n";
  print t, c, a;
  print t && a % b == 1;
  print "nothing", "\n";
}
