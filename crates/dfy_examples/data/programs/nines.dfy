newtype i32 = x: int | -0x8000_0000 <= x < 0x8000_0000

// The sum of a number's decimal digits has its remainder by nine.
method DigitSum(n: i32) returns (s: i32)
  requires 0 <= n
  ensures 0 <= s <= n
  ensures s % 9 == n % 9
{
  s := 0;
  var m: i32 := n;
  while m != 0
    invariant 0 <= s && 0 <= m
    invariant s as int + m as int <= n as int
    invariant (s as int + m as int) % 9 == n as int % 9
    decreases m
  {
    s := s + m % 10;
    m := m / 10;
  }
}

method Main() {
  var s: i32 := DigitSum(98765);
  print s, "\n";
}
