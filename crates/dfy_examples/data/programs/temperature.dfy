newtype i32 = x: int | -0x8000_0000 <= x < 0x8000_0000

method Fahrenheit(c: i32) returns (f: i32)
  requires -50 <= c <= 100
  ensures 5 * (f - 32) <= 9 * c < 5 * (f - 32) + 5
{
  f := 9 * c / 5 + 32;
}

method Main() {
  var low: i32 := Fahrenheit(-40);
  var warm: i32 := Fahrenheit(37);
  print low, " ", warm, "\n";
}
