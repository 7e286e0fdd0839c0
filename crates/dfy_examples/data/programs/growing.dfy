newtype i32 = x: int | -0x8000_0000 <= x < 0x8000_0000

method Squares(a: i32, b: i32)
  requires 0 <= a <= b <= 1000
  ensures a * a <= b * b
{
}

method Quotients(a: i32, d: i32, e: i32)
  requires 0 <= a && 0 < d <= e
  ensures a / e <= a / d
{
}

method ByItself(n: i32)
  requires n != 0
  ensures n / n == 1 && n % n == 0
{
}

method Frame(a: i32, b: i32) returns (s: i32)
  requires 0 <= a <= b <= 1000
  ensures s == b * b - a * a
  ensures 0 <= s
{
  s := (b - a) * (b + a);
}

method Main() {
  Squares(3, 5);
  Quotients(17, 2, 3);
  ByItself(-4);
  var s: i32 := Frame(3, 5);
  print s, "\n";
}
