newtype i32 = x: int | -0x8000_0000 <= x < 0x8000_0000

method ByTwoAndThree(n: i32)
  requires n % 2 == 0 && n % 3 == 0
  ensures n % 6 == 0
{
}

method ByThreeAndFive(n: i32)
  requires n % 3 == 2 && n % 5 == 3
  ensures n % 15 == 8
{
}

method Thirds(n: i32) returns (a: i32, b: i32, c: i32)
  requires 0 <= n < 0x7FFF_FFFE
  ensures a + b == n - c
  ensures a <= b <= c <= a + 1
{
  a, b, c := n / 3, (n + 1) / 3, (n + 2) / 3;
}

method Main() {
  ByTwoAndThree(18);
  ByThreeAndFive(38);
  var a: i32, b: i32, c: i32 := Thirds(100);
  print a, " ", b, " ", c, "\n";
}
